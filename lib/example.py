"""Deals 941, looks for the best answer, has its certificate checked, plays the list and reviews it; then asks what can't be asked.

pip install ./lib/python
python3 lib/example.py 941
"""
import sys

import luffaknife


def told(call):
    """What a call answers, or why it is refused."""
    try:
        return call()
    except luffaknife.Refused as refused:
        return f"refused: {refused}"


def main(number):
    answer = told(lambda: luffaknife.best(number, certificate=True))
    if isinstance(answer, str):
        print(answer)
        return 3
    print(answer.text, end="")
    if answer.certificate:
        print("check:", luffaknife.check(number, answer.certificate).text)
        print(told(lambda: luffaknife.check(number, answer.certificate[:-1])))
    if answer.list:
        played = luffaknife.replay(number, answer.list)
        print(f"replay: {len(played.boards)} boards, {'won' if played.is_won else 'not won'}")
        print("review:", luffaknife.review(number, answer.text).text)
    print(told(lambda: luffaknife.replay(number, "1a", game=luffaknife.Game(cells=0))))
    print(told(lambda: luffaknife.best("KS KS\n")))
    return 0


if __name__ == "__main__":
    sys.exit(main(int(sys.argv[1]) if len(sys.argv) > 1 else 941))
