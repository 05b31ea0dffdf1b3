welcome = Willkommen, { $name }.
