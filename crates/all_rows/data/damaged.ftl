
key1 = Value 1

g@Rb@ge = #2y ds

key2 = Value 2

