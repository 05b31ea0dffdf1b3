hello = Another Hi!
