"""The script ./wf: it finds or builds the program and the library, installs them, and prints help."""
