"""What proves, builds and installs the programs."""
