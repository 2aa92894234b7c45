"""The first sheet of a spreadsheet in the format xlsx, read and written: a zip of XML. Cells are written as text, so that no
spreadsheet program makes numbers or days of them."""

import datetime
import io
import re
import zipfile
from xml.etree import ElementTree
from xml.sax.saxutils import escape

from program import Refused

MAIN = "{http://schemas.openxmlformats.org/spreadsheetml/2006/main}"
LINK = "{http://schemas.openxmlformats.org/officeDocument/2006/relationships}id"
HEAD = '<?xml version="1.0" encoding="UTF-8" standalone="yes"?>\n'
PARTS = {
    "[Content_Types].xml": HEAD + '<Types xmlns="http://schemas.openxmlformats.org/package/2006/content-types">'
    '<Default Extension="rels" ContentType="application/vnd.openxmlformats-package.relationships+xml"/>'
    '<Override PartName="/xl/workbook.xml" ContentType="application/vnd.openxmlformats-officedocument.spreadsheetml.sheet.main+xml"/>'
    '<Override PartName="/xl/worksheets/sheet1.xml" ContentType="application/vnd.openxmlformats-officedocument.spreadsheetml.worksheet+xml"/>'
    '<Override PartName="/xl/styles.xml" ContentType="application/vnd.openxmlformats-officedocument.spreadsheetml.styles+xml"/></Types>',
    "_rels/.rels": HEAD + '<Relationships xmlns="http://schemas.openxmlformats.org/package/2006/relationships"><Relationship Id="r1" '
    'Type="http://schemas.openxmlformats.org/officeDocument/2006/relationships/officeDocument" Target="xl/workbook.xml"/></Relationships>',
    "xl/workbook.xml": HEAD + '<workbook xmlns="http://schemas.openxmlformats.org/spreadsheetml/2006/main" '
    'xmlns:r="http://schemas.openxmlformats.org/officeDocument/2006/relationships"><sheets><sheet name="book" sheetId="1" r:id="r1"/></sheets></workbook>',
    "xl/_rels/workbook.xml.rels": HEAD + '<Relationships xmlns="http://schemas.openxmlformats.org/package/2006/relationships">'
    '<Relationship Id="r1" Type="http://schemas.openxmlformats.org/officeDocument/2006/relationships/worksheet" Target="worksheets/sheet1.xml"/>'
    '<Relationship Id="r2" Type="http://schemas.openxmlformats.org/officeDocument/2006/relationships/styles" Target="styles.xml"/></Relationships>',
    # Style 1 is text (format 49), for cells and, by <cols>, for rows that are added; style 2 is text in red.
    "xl/styles.xml": HEAD + '<styleSheet xmlns="http://schemas.openxmlformats.org/spreadsheetml/2006/main">'
    '<fonts count="2"><font><sz val="11"/><name val="Calibri"/></font><font><sz val="11"/><color rgb="FFB3261E"/><name val="Calibri"/></font></fonts>'
    '<fills count="1"><fill><patternFill patternType="none"/></fill></fills><borders count="1"><border/></borders>'
    '<cellStyleXfs count="1"><xf/></cellStyleXfs><cellXfs count="3"><xf/><xf numFmtId="49" applyNumberFormat="1"/>'
    '<xf numFmtId="49" fontId="1" applyNumberFormat="1" applyFont="1"/></cellXfs></styleSheet>',
}


def column_name(at):
    """A, B, .. Z, AA, of a column counted from 0."""
    name, at = "", at + 1
    while at:
        at, rest = divmod(at - 1, 26)
        name = chr(65 + rest) + name
    return name


def column_of(name):
    at = 0
    for letter in name:
        at = at * 26 + ord(letter) - 64
    return at - 1


def write(path, rows, red):
    """Rows of texts, of which those in the set of pairs of row and column, counted from 0, are red."""
    out = io.StringIO()
    out.write(HEAD + '<worksheet xmlns="http://schemas.openxmlformats.org/spreadsheetml/2006/main"><sheetViews><sheetView workbookViewId="0">'
              '<pane ySplit="1" topLeftCell="A2" state="frozen"/></sheetView></sheetViews><cols><col min="1" max="20" width="14" style="1"/></cols><sheetData>')
    for at, row in enumerate(rows):
        out.write(f'<row r="{at + 1}">')
        for column, text in enumerate(row):
            if text:
                # Letters that XML can't have would make a file that nobody opens.
                text = re.sub(r"[^\t\n\r -\ud7ff\ue000-\ufffd\U00010000-\U0010ffff]", "?", text)
                style = 2 if (at, column) in red else 1
                out.write(f'<c r="{column_name(column)}{at + 1}" s="{style}" t="inlineStr"><is><t xml:space="preserve">{escape(text)}</t></is></c>')
        out.write("</row>")
    out.write("</sheetData></worksheet>")
    with zipfile.ZipFile(path, "x", zipfile.ZIP_DEFLATED) as file:
        for name, text in {**PARTS, "xl/worksheets/sheet1.xml": out.getvalue()}.items():
            # The same book gives the same bytes.
            file.writestr(zipfile.ZipInfo(name, (2000, 1, 1, 0, 0, 0)), text, zipfile.ZIP_DEFLATED)


def parse(file, name):
    try:
        return ElementTree.fromstring(file.read(name))
    except KeyError:
        return None


def text_of(node):
    return "".join(part.text or "" for part in node.iter(MAIN + "t") if part is not None)


def date_styles(file):
    """The numbers of the styles that show a number as a date."""
    styles = parse(file, "xl/styles.xml")
    if styles is None:
        return set()
    own = {int(it.get("numFmtId")): it.get("formatCode", "") for it in styles.iter(MAIN + "numFmt")}
    cells = styles.find(MAIN + "cellXfs")
    found = set()
    for at, it in enumerate(cells if cells is not None else []):
        number = int(it.get("numFmtId", 0))
        code = re.sub(r'"[^"]*"|\[[^\]]*\]|\\.', "", own.get(number, ""))
        if 14 <= number <= 17 or number == 22 or re.search("[dyDY]", code):
            found.add(at)
    return found


def first_sheet(file):
    book, links = parse(file, "xl/workbook.xml"), parse(file, "xl/_rels/workbook.xml.rels")
    wanted = book.find(f"{MAIN}sheets/{MAIN}sheet").get(LINK)
    target = next(link.get("Target") for link in links if link.get("Id") == wanted)
    return target.lstrip("/") if target.startswith("/") else f"xl/{target}"


def read(path):
    """The rows of the first sheet, by their numbers. A number that is shown as a date comes as YYYY-MM-DD."""
    try:
        with zipfile.ZipFile(path) as file:
            shared_part = parse(file, "xl/sharedStrings.xml")
            shared = [] if shared_part is None else [text_of(it) for it in shared_part.iter(MAIN + "si")]
            dates, sheet = date_styles(file), parse(file, first_sheet(file))
    except (zipfile.BadZipFile, ElementTree.ParseError, AttributeError, StopIteration) as error:
        raise Refused(f"{path} is no spreadsheet of the format xlsx ({error})") from error
    rows = {}
    for row in sheet.iter(MAIN + "row"):
        cells = rows.setdefault(int(row.get("r")), [])
        for cell in row.iter(MAIN + "c"):
            at = column_of(re.match("[A-Z]+", cell.get("r")).group())
            cells.extend([""] * (at + 1 - len(cells)))
            cells[at] = value_of(cell, shared, dates)
    return [rows.get(number, []) for number in range(1, max(rows, default=0) + 1)]


def value_of(cell, shared, dates):
    kind, value = cell.get("t", "n"), cell.find(MAIN + "v")
    if kind == "inlineStr":
        return text_of(cell)
    if value is None or value.text is None:
        return ""
    if kind == "s":
        return shared[int(value.text)]
    if kind == "b":
        return "TRUE" if value.text == "1" else "FALSE"
    if kind == "n" and int(cell.get("s", 0)) in dates:
        return (datetime.date(1899, 12, 30) + datetime.timedelta(days=int(float(value.text)))).isoformat()
    return value.text
