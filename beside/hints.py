"""What is meant by what was written: months, dates and amounts in other spellings."""
import re

from beside.common import CALENDAR, read_month

MANY = 200                          # of so many odd names the meaning is looked for, which takes its time
MONTHS = tuple(name[:3].lower() for name in CALENDAR)

def month_meant(text):
    """The month that a text means in another spelling, as it has to be written, or None."""
    text = text.strip().lower()
    shapes = (
        (r"(\d{4})[-/. ]?(\d{1,2})(?:[-/. ]\d{1,2}(?:[t ].*)?)?", (1, 2)),
        (r"(\d{1,2})[-/. ](\d{4})", (2, 1)),
        (r"([a-z]{3})[a-z]*\.?[-/. ,]*(\d{4})", (2, 1)),
        (r"(\d{4})[-/. ]*([a-z]{3})[a-z]*", (1, 2)),
    )
    for shape, (year, month) in shapes:
        fits = re.fullmatch(shape, text)
        if fits:
            number = fits[month]
            number = MONTHS.index(number) + 1 if number in MONTHS else int(number) if number.isdigit() else 0
            written = f"{fits[year]}-{number:02d}"
            return written if read_month(written) is not None else None
    return None

def month_advice(text):
    written = month_meant(text)
    return f"write {written}" if written else "write a month from 1800-01 to 2999-12, as 1982-07"

def date_advice(text):
    """How a date in another spelling is written."""
    text = text.strip()
    fits = re.fullmatch(r"(\d{4})[-/. ](\d{1,2})[-/. ](\d{1,2})(?:[T ].*)?", text)
    if fits:
        return f'write "{fits[1]}-{int(fits[2]):02d}-{int(fits[3]):02d}"'
    days = [f'"{day}"' for day in days_meant(text)]
    return f"write {' or '.join(days)}" if days else 'write year, month and day, as "1911-06-15"'

def days_meant(text):
    """The days, as they are written, that a text with its year at the end may mean."""
    told = re.fullmatch(r"(\d{1,2})[-/. ](\d{1,2})[-/. ](\d{4})", text, re.ASCII)
    one, other = (int(told[1]), int(told[2])) if told else (0, 0)
    pairs = dict.fromkeys(((one, other), (other, one)))
    return [f"{told[3]}-{month:02d}-{day:02d}" for month, day in pairs if 1 <= month <= 12 and 1 <= day <= 31]

def amount_advice(text):
    """What is wrong with a text that should be a whole number from 0 on, and what to do."""
    text = text.strip().strip('"')
    if re.fullmatch(r"\d{1,3}([,.' ]\d{3})+", text) and not re.fullmatch(r"\d+\.\d{3}", text):
        return f"write the number without signs within, {re.sub('[^0-9]', '', text)}"
    if re.fullmatch(r"[+-]?\d*[.,]\d*", text) and re.search(r"\d", text):
        return "amounts are whole numbers: round it, or count in a smaller unit"
    if re.fullmatch(r"-\d+", text):
        return "an amount is 0 or more"
    if text.endswith("%"):
        return "write a whole number without a percent sign"
    if re.match(r"[\d.,]+\s*[A-Za-z]", text):
        return "write the number alone, without a unit"
    if text.lower() in ("", "-", "na", "n/a", "nan", "null", "none", "m", "--"):
        return "a missing reading has to be filled in: write a whole number"
    return "write a whole number, as 120"

def spans(numbers):
    """The runs of rising numbers: the first and last of each. Past the sixth they are one."""
    runs = []
    for number in numbers:
        if runs and (runs[-1][1] == number - 1 or len(runs) == 6):
            runs[-1][1] = number
        else:
            runs.append([number, number])
    return runs

def listed_months(months):
    """Calendar months from 1 in words: runs of them as `May to August`."""
    texts = []
    for first, last in spans(sorted(set(months))):
        names = [CALENDAR[month - 1] for month in dict.fromkeys((first, last))]
        texts.append((" and " if last == first + 1 else " to ").join(names))
    return ", ".join(texts)
