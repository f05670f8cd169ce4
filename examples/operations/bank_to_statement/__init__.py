"""The parts of the command bank-to-statement beside this folder."""
