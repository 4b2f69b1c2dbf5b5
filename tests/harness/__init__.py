"""How checks are told, and how the program is run, stopped and killed."""
