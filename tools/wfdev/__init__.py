"""The code of the scripts in checks/ and bench/, which are launchers of the modules here."""
