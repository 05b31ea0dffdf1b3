hello-world = Hello, world!
