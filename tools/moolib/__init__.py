"""What programs of moo share, of the standard library alone: values, calls, the words for errors, and a client over HTTP.

`values` reads and writes literals. `calls` has `Call`, a call that is read once, and `begun` a half-typed one; `lines` takes the lines apart
that people write, and `batches` has calls whose answers have names, and `names` reads these names. `json_values` has values as JSON.
`errors` has what is raised, and the words for it. `exchange` is one request over HTTP, `service` asks a service of moo and tries again, and
`front` a front. `client` has `Moo`, for programs: `once` lets its batches act once, `handles` puts them together, and `feed` follows changes.
`copies` has the copies of a world, and `private` opens files for their owner alone. `exporting` makes a class or a room into a script, whose
names and lines are those of `scripts`.
"""

from moolib.calls import Call
from moolib.client import Moo
from moolib.errors import MooError
from moolib.service import Service
from moolib.values import ErrorValue, Obj, Value, read, written

# That of `moo --version`, and of the packages.
__version__ = "1.1.0"

__all__ = ["Call", "ErrorValue", "Moo", "MooError", "Obj", "Service", "Value", "read", "written"]
