hello = Hi!
