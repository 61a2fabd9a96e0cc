"""Linux's code beside the program's: what the commands of tools/linux share."""
