"""The scripts beside the program: `./basin help` names them, and `from beside import basin` calls the program."""
