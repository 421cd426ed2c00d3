"""What to read to believe what `fc` promises: walks the definitions on which its clause leans."""
