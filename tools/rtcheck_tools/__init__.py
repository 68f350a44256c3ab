"""What rtcheck-report and rtcheck-build are made of. Python 3.8, standard library alone; they judge nothing."""
