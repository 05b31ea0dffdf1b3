welcome = Welcome, { $name }.
thanks = Thank you.
bye = Goodbye.
