a = [x
    y
