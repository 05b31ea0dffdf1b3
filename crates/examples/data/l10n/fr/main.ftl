welcome = Bienvenue, { $name }.
thanks = Merci.
