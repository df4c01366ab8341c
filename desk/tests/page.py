#!/usr/bin/env python3
"""page.py FSQ: what `fsq report` writes, in a browser. FSQ is the command. It is not in the gate; it needs chromium and pdftotext (poppler-utils), and ends with 77 where
one is missing.

The cells of the page are compared with the listing of `fsq list`; the page is not wider than a narrow and a wide window; every record is on the printed pages."""
import html.parser
import pathlib
import shutil
import subprocess
import sys
import tempfile

SHOWS = pathlib.Path(__file__).resolve().parent.parent.parent / 'tests/shows'
WIDTHS = 420, 1200  # chromium has no narrower window


class Cells(html.parser.HTMLParser):
    """The cells of each row, and the title."""

    def __init__(self, text):
        super().__init__()
        self.rows, self.title, self.into = [], '', None
        self.feed(text)

    def handle_starttag(self, tag, _):
        if tag == 'tr':
            self.rows.append([])
        elif tag == 'td':
            self.rows[-1].append('')
            self.into = 'cell'
        elif tag == 'title' and not self.rows:
            self.into = 'title'

    def handle_endtag(self, tag):
        if tag in ('td', 'title'):
            self.into = None

    def handle_data(self, data):
        if self.into == 'cell':
            self.rows[-1][-1] += data
        elif self.into == 'title':
            self.title += data


def browser(*arguments):
    command = ['chromium', '--headless', '--no-sandbox', '--disable-gpu', *arguments]
    return subprocess.run(command, check=True, capture_output=True, text=True, timeout=120).stdout


def main():
    missing = [name for name in ('chromium', 'pdftotext') if not shutil.which(name)]
    if missing:
        print(f'page: {" and ".join(missing)} not here, skipped')
        sys.exit(77)
    fsq, records = sys.argv[1], 0
    with tempfile.TemporaryDirectory() as folder:
        page, measured, printed = (pathlib.Path(folder) / name for name in ('page.html', 'measured.html', 'page.pdf'))
        for show in sorted(SHOWS.glob('*.fsq')):
            subprocess.run([fsq, 'report', show, '-o', page], capture_output=True)
            listing = subprocess.run([fsq, 'list', show], capture_output=True, text=True).stdout.splitlines()
            rows = [row for row in Cells(browser('--dump-dom', page.as_uri())).rows if len(row) == 6 and row[1]]
            if listing[0].startswith('FSQ'):
                said = [f'{offset} {len(data.split())} {data.replace(" ", "")}' for _, _, offset, data, _, _ in rows]
                assert said == listing[1:], show
            else:
                number, record = listing[0].split()[1:]
                assert rows[int(record)][3].startswith(f'refused {number}:'), show
            for width in WIDTHS:
                measured.write_text(page.read_text() + '<script>document.title = document.documentElement.scrollWidth - innerWidth</script>')
                wider = Cells(browser(f'--window-size={width},800', '--dump-dom', measured.as_uri())).title
                assert int(wider) <= 0, (show, width, wider)
            browser(f'--print-to-pdf={printed}', page.as_uri())
            text = subprocess.run(['pdftotext', '-layout', printed, '-'], check=True, capture_output=True, text=True).stdout
            for row in rows:
                assert any(line.split()[:2] == row[1:3] and row[4] in line for line in text.splitlines()), (show, row)
            records += len(rows)
    print(f'page: {records} records, as listed, in windows of {" and ".join(map(str, WIDTHS))} and printed')


main()
