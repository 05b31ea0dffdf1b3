intro = Welcome, { $name }.
