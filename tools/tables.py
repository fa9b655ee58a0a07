"""Rows of tables in definitions, texts of sources, and which crate uses which: what tools/pinned, tools/bytes and tools/objects read of a tree."""
import glob
import os
import re

WORD = re.compile(r'[A-Za-z0-9]+')
# Comments, texts and characters of a source: a comment begins with / or #, and a character of Rust with one mark.
RUST = re.compile(r'//[^\n]*|r#".*?"#|b?"(?:[^"\\]|\\.)*"|\'(?:[^\'\\\n]|\\[^\n]{1,9}?)\'', re.S)
PYTHON = re.compile(r'#[^\n]*|("""|\'\'\').*?\1|"(?:[^"\\\n]|\\.)*"|\'(?:[^\'\\\n]|\\.)*\'', re.S)
# Of a line of definitions or code: a text, a number, a mark, a remark, another word.
TOKEN = re.compile(r'"((?:[^"\\]|\\.)*)"|(0x[0-9a-fA-F_]+|(?<![\w.])\d[\d_]*(?![\w.]))|([()∷,])|((?:--|//).*)|([^\s"()∷,]+)')
# Words between two alternatives.
BETWEEN = {'then', 'else', '=', '|', 'if', '=>', '{', '}', ';'}
# What may stand around a text at some places alone.
MARKS = ' ,:;"'
ESCAPES = {'n': '\n', 't': '\t', 'r': '\r'}


def read(path):
    with open(path, encoding='utf-8', errors='replace') as file:
        return file.read()


def files(tree, form):
    return sorted(path for path in glob.glob(tree + '/' + form, recursive=True) if os.path.isfile(path))


def crate_of(tree, path):
    return path[len(tree + '/crates/'):].split('/')[0]


def rows_under(text, head):
    """the cells of each row of a table of Markdown that begins with this line"""
    lines = text[text.index(head):].split('\n\n')[0].split('\n')[2:]
    return [[cell.strip() for cell in line.strip('|').split('|')] for line in lines]


# ---------------------------------------------------------------- texts of sources
def unescaped(text):
    """a text of a source as it is written"""
    text = re.sub(r'\\u\{([0-9a-f]+)\}', lambda m: chr(int(m[1], 16)), re.sub(r'\\\n\s*', '', text))
    return re.sub(r'\\(.)', lambda m: ESCAPES.get(m[1], m[1]), text)


def bare(line):
    """a line without the marks around it, and without the program's name that notes begin with"""
    return line.strip(MARKS).removeprefix('hdminet: ')


def core(text):
    """of a text its longest line"""
    return max(map(bare, text.split('\n')), key=len)


def is_text(form, token):
    return token[0] not in '/#' and not (form is RUST and token[0] == "'")


def texts_of(source, form):
    """the texts of a source, each with the source line that it begins on"""
    for found in form.finditer(source):
        if is_text(form, found[0]):
            begin, end = source.rfind('\n', 0, found.start()) + 1, source.find('\n', found.start())
            if found[0].startswith('r#'):
                yield found[0][3:-2], source[begin:end]
                continue
            yield unescaped(re.sub(r'^b?("""|\'\'\'|"|\')|("""|\'\'\'|"|\')$', '', found[0])), source[begin:end]


# ---------------------------------------------------------------- rows of tables
class Row:
    """a row: its texts, or else its numbers, and the codes that stand with it"""
    def __init__(self, place, texts, numbers, codes):
        self.place, self.crate = place, place.split('/')[0]
        self.file, line = place.rsplit(':', 1)
        self.line = int(line)
        self.texts, self.numbers, self.codes = texts, numbers, codes
        self.cores = tuple(one for one in map(core, texts) if WORD.search(one) and len(one) > 1)


class Piece:
    """a part of a line; of a list where one of its items follows"""
    def __init__(self, codes=(), is_item=False):
        self.texts, self.numbers, self.codes, self.is_item = [], [], list(codes), is_item
        self.has_items = False

    def take(self, other):
        self.texts += other.texts
        self.numbers += other.numbers
        self.codes += other.codes
        self.has_items |= other.has_items

    def take_number(self, digits):
        number = int(digits, 16) if digits.startswith('0x') else int(digits)
        self.numbers.append(number)
        if digits.startswith('0x'):
            self.codes.append(number)


def pieces(line):
    """the parts of a line of which no two are alternatives. What stands in brackets is of the part around them, but items of
    a list in brackets are parts of their own. A number before `then` is the code of what follows it."""
    open_pieces, done = [Piece()], []
    for text, digits, mark, remark, word in TOKEN.findall(line):
        top = open_pieces[-1]
        if remark:
            break
        if digits:
            top.take_number(digits)
        elif mark == '(':
            open_pieces.append(Piece())
        elif mark == ')':
            if len(open_pieces) > 1:
                open_pieces.pop()
                if top.is_item:
                    done.append(top)
                    open_pieces[-1].has_items = True
                else:
                    open_pieces[-1].take(top)
        elif mark == ',' and len(open_pieces) > 1:
            continue
        elif mark or word in BETWEEN or word.endswith(';'):
            done.append(top)
            open_pieces[-1] = Piece(top.numbers if word == 'then' else (), mark == '∷' and len(open_pieces) > 1)
        elif not word:
            top.texts.append(unescaped(text))
    return done + open_pieces


def is_row_of_numbers(piece, line):
    """whether a part of a line is a row of a table of numbers: of three or more, beside no list of texts, in no sum or statement"""
    return (not piece.texts and len(piece.numbers) > 2 and not piece.has_items
            and bool(re.search(r'∷|^\s*[\(\[{]|^\s*[\dx][\da-fx ]*;$', line)) and not re.search(r' [-+*/%<=≡]+ ', line))


def rows_of(place, lines, first=1):
    """the rows of lines of a file, the first of which has this number"""
    for at, line in enumerate(lines, first):
        if not re.match(r'\s*(use|import)\b|\s*(--|//)', line):
            for piece in pieces(line):
                is_numbers = is_row_of_numbers(piece, line)
                row = Row('%s:%d' % (place, at), piece.texts, piece.numbers if is_numbers else [], piece.codes)
                if row.cores or is_numbers:
                    yield row


def rows_of_definitions(tree):
    for path in files(tree, 'crates/*/specs/**/*.antt'):
        crate = crate_of(tree, path)
        if not crate.endswith('_tests'):
            yield from rows_of('%s/%s' % (crate, os.path.basename(path)), read(path).split('\n'))


def constants_cited(tree):
    """the constants of the code that definitions take as they are: crate, module and name"""
    cited = set()
    for path in files(tree, 'crates/*/specs/**/*.antt'):
        for crate, module, names in re.findall(r'Rattle\.(\w+)\.specs\.declared\.([\w.]+)\.TheConstants\.\{([^}]*)\}', read(path)):
            cited |= {(crate, module, name.split(' as ')[0].strip()) for name in names.split(',')}
    return sorted(cited)


def rows_of_constants(tree):
    for crate, module, name in constants_cited(tree):
        path = '%s/crates/%s/src/%s.rt' % (tree, crate, module.replace('.', '/'))
        source = read(path) if os.path.exists(path) else ''
        # (a public constant, or rows of numbers in a macro)
        form = r'\n *(?:pub(?:\(\w+\))? const %s:[^=]*=(.*?)|const %s:[^=]*= \w+! \{(\n.*?)\n *\});\n' % ((re.escape(name),) * 2)
        found = re.search(form, source, re.S)
        if found:
            # (the name of a place of a form stands for a word, and is none)
            rows = [re.sub(r'Slot::(?!Word\b)\w+, "[^"]*"', '', line) for line in (found[1] or found[2]).split('\n')]
            yield from rows_of('%s/%s.rt' % (crate, module), rows, source.count('\n', 0, found.start(1 if found[1] else 2)) + 1)


# The files of edid_tables that have the tables of data blocks.
BLOCKS = ('audio', 'cta', 'dolby', 'forum', 'hdmi')


def rows_of_fields(tree):
    """the names in tables of the fields of data blocks, which a definition cites as they are, each once: byte, highest bit, lowest bit, name"""
    names = {'reserved'}
    for path in (it for name in BLOCKS for it in files(tree, 'crates/edid_tables/src/%s.rt' % name)):
        for at, line in enumerate(read(path).split('\n'), 1):
            found = re.match(r' *\d+ \d+ \d+ "([^"]+)" \[', line)
            if found and found[1] not in names:
                names.add(found[1])
                yield Row('%s/%s:%d' % (crate_of(tree, path), os.path.basename(path), at), [found[1]], [], [])


def rows_of_infoframes(tree):
    """the fields of InfoFrames, each once: its name, and the name with each text of its values, which has the least of these as code"""
    seen = set()
    for path in files(tree, 'crates/infoframe_tables/src/*.rt'):
        for at, line in enumerate(read(path).split('\n'), 1):
            found = re.match(r' *\d+ \d+ \d+ "([^"$]+)" (\[.*)', line) or re.match(r' *(header_rows)!\((.*)', line)
            if found:
                name = 'InfoFrame type' if found[1] == 'header_rows' else found[1]
                values = [([name, text], [int(least)] if least else []) for least, text in re.findall(r'(?:(\d+) \d+ )?"([^"]*)"', found[2])]
                for texts, codes in [([name], [])] + values:
                    if len(core(texts[-1])) > 1 and WORD.search(texts[-1]) and texts[-1] != 'reserved' and tuple(texts) not in seen:
                        seen.add(tuple(texts))
                        yield Row('%s/%s:%d' % (crate_of(tree, path), os.path.basename(path), at), texts, [], codes)


def all_rows(tree):
    return list(rows_of_definitions(tree)) + list(rows_of_constants(tree)) + list(rows_of_fields(tree)) + list(rows_of_infoframes(tree))


# ---------------------------------------------------------------- crates
def crates_named(tree):
    """the crates that each crate names in crates.txt"""
    lines = [line for line in read(tree + '/crates.txt').split('\n') if ':' in line and not line.startswith('#')]
    return {line.split(':')[0].split(' ')[0]: line.split(':')[1].split() for line in lines}


def crates_used(named):
    """each crate, and those that it uses at first or second hand"""
    whole = {}

    def all_of(name):
        if name not in whole:
            whole[name] = {name}.union(*(all_of(other) for other in named.get(name, ())))
        return whole[name]
    return {name: all_of(name) for name in named}
