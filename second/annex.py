"""The annex of square sums, document 02's sixth request, each entry summed anew from its rule.

python3 second/annex.py prints it: an entry a line, from entry 0 on.
"""
LAST_INDEX = 1_024


def square_sum(k):
    """Entry k: the sum of j² for j below k."""
    return sum(j * j for j in range(k))


def annex():
    """The entries from 0 to the last."""
    return [square_sum(k) for k in range(LAST_INDEX + 1)]


if __name__ == "__main__":
    for entry in annex():
        print(entry)
