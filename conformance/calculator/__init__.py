"""An exact calculator for municipal securities, in whole numbers and fractions alone. README.md says how to ask it."""
