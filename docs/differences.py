"""What is found wrong on the pages, counted."""
wrong = []


def expect(right, where, what):
    """Counts a difference."""
    if not right:
        wrong.append(f"{where}: {what}")
