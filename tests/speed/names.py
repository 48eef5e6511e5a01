"""What the programs that are measured are called, on the page too."""

TREE, HAND, BARE, MODEL = "run_events", "by hand", "by hand, no test", "model"
VALUE, CALLS = "by value", "by hand, calls alone"
