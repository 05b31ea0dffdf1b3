#bad
a = b
