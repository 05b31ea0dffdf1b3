hi = Hi!
big = { NUMBER(5, minimumFractionDigits: 18446744073709551615) }
