"""Comparisons, counted: what selfcheck.py and its parts report."""
passed = []
failed = []


def check(label, got, wanted):
    """Count one comparison."""
    if got == wanted:
        passed.append(label)
    else:
        failed.append(f"{label}: got {got}, wanted {wanted}")
