a = b
