"""A compiler of the definitions in crates/*/specs, as far as they are computed, to Python and to JavaScript. README.md beside this folder says how it is used.
"""
from .modules import Changes, Constructor, Global, Library, Module
from .nodes import Fault
from .program import CRATES, Drop, Host, NoCase, Program, javascript
from .reasons import idle_tests
from .values import NONE, TT, Long, Made, Map, Record, changed, error, fields_of, octets, okay, record, single, some
from .writing import Writer

__all__ = ['CRATES', 'Changes', 'Constructor', 'Drop', 'Fault', 'Global', 'Host', 'Library', 'Long', 'Made', 'Map', 'Module', 'NONE', 'NoCase',
           'Program', 'Record', 'TT', 'Writer', 'changed', 'error', 'fields_of', 'idle_tests', 'javascript', 'octets', 'okay', 'record', 'single',
           'some']
