"""What users touch, tried over the programs that the proof has just built."""
