"""What the built deolmutt does with real maildirs."""
