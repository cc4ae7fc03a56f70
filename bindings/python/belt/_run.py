"""A run of frames, and its reader."""

from __future__ import annotations

from ctypes import c_uint8
from typing import Any, Tuple, Type, TypeVar

from . import _raw
from ._blocks import frame_number
from ._headers import REFERENCES, Models, header_bytes, models_read, stored_models
from ._job import Report, Settings, asked, asked_of_words, lent_buffers, lent_of_words, report_of
from ._lend import accepted, answer, call, code, models_of, octets, room, size, whole, words as words_of
from ._model import StoredModel
from ._sizes import FORM_SAMPLES, block_bytes

_Own = TypeVar("_Own", bound="_Held")


def _form(form: Any) -> int:
    return whole(form, "form", 0, 2**32 - 1)


class _Held:
    """The prior of the next inter frame, the flag and the form: what a run and its reader have alike."""

    _run: Any

    def __init__(self, flag: int, form: int) -> None:
        """Begins with a flag, 0 or 1, and a form, 1 or 2; the first prior is identity. Refuses 4."""
        self._run = call("belt_run_start", code(flag, "flag"), _form(form)).run

    @classmethod
    def of_parts(cls: Type[_Own], prior: Any, flag: int, form: int) -> _Own:
        """One that was kept elsewhere; each call judges it (4, 8)."""
        lent = models_of(prior, "prior")
        if lent.length != REFERENCES:
            raise ValueError(f"prior: {REFERENCES} models are wanted, not {lent.length}")
        held = cls.__new__(cls)
        held._run = _raw.Run(lent.elements, code(flag, "flag"), _form(form))
        return held

    @property
    def prior(self) -> Tuple[StoredModel, ...]:
        """Seven models."""
        return stored_models(self._run.prior)

    @property
    def flag(self) -> int:
        """1 for high precision."""
        return int(self._run.flag)

    @property
    def form(self) -> int:
        """1 or 2."""
        return int(self._run.form)

    def __eq__(self, other: object) -> bool:
        return type(self) is type(other) and self.__reduce__() == other.__reduce__()

    __hash__ = None  # type: ignore[assignment]

    def __reduce__(self) -> Tuple[Any, ...]:
        return type(self).of_parts, (self.prior, self.flag, self.form)

    def __repr__(self) -> str:
        return f"{type(self).__name__}.of_parts({self.prior}, {self.flag}, {self.form})"

    def _step(self, moved: Any, judged: Any, *arguments: Any) -> Any:
        """Takes the answer's run, which is this one where the call refused."""
        self._run = moved.run
        return accepted(judged, *arguments)

    def switch(self, code_of_switch: int) -> None:
        """Between two frames: TO_LOW_PRECISION, TO_HIGH_PRECISION or TO_FORM_2, from which there is no way back; the prior
        stays. Refuses 4, 8."""
        moved = answer("belt_run_switch", self._run, code(code_of_switch, "code"))
        self._step(moved, moved)


class Run(_Held):
    """A run of frames that is recorded ('A run of frames'): Run(flag, form) holds the prior of the next inter frame, the
    flag and the form. An accepted frame's or job's models become the prior; a refused call leaves the run as it was.

    >>> import belt
    >>> run, reader, header = belt.Run(1, belt.FORM_2), belt.RunReader(1, belt.FORM_2), bytearray(belt.HEADER_BYTES)
    >>> models = (belt.StoredModel((8192, -8192, 65536, 0, 0, 65536)),) + belt.IDENTITIES[1:]
    >>> run.frame(False, bytes([1, 0, 0, 0, 0, 0, 0]), models, 0, header)
    17
    >>> reader.read(False, header, 0).models == models == run.prior
    True
    """

    def frame(self, intra: bool, types: Any, models: Any, start: int, header: Any) -> int:
        """Writes a frame of either kind, as encode_global_motion does with the run's flag and prior; answers how many bits.
        Refuses 2, 4, 14, 7, 8, 3; of a key frame 2, 4, 14, 7, 8."""
        intra, start = bool(intra), size(start, "start")
        arguments = (
            octets(types, "types", REFERENCES),
            models_of(models, "models", REFERENCES),
            start,
            room(header, c_uint8, "header", header_bytes(intra, types, models, self.flag, self.prior, start)),
        )
        framed = answer("belt_run_frame", self._run, intra, *arguments)
        return int(self._step(framed, framed.written, *arguments).bits)

    def store(self, frame: int, words: Any, classes: Any, blocks: Any) -> int:
        """Stores a frame's words and classes in the form held, as write_frame does in form 2; answers how many blocks. The
        run stays. Refuses 1, 2, 4, 8, 12, 13, 3, 17."""
        lent = words_of(words)
        wanted = block_bytes(lent.total, self.form) if self.form in FORM_SAMPLES else None
        return int(
            call(
                "belt_run_store",
                self._run,
                frame_number(frame),
                lent,
                octets(classes, "classes", lent.total),
                room(blocks, c_uint8, "blocks", wanted),
            ).blocks
        )

    def job(
        self,
        input_y: Any,
        reference: Any,
        width: int,
        height: int,
        settings: Settings,
        classes: Any,
        buffers: Any,
        types: Any = (0,) * 6,
        models: Any = None,
    ) -> Report:
        """Runs a whole job as an inter frame, with the run's prior, flag and form; the flag of the settings isn't looked
        at. Refuses as job does, and 13 behind 8: a class 4 in form 1."""
        width, height = size(width, "width"), size(height, "height")
        arguments = asked(input_y, reference, width, height, settings, classes, types, models)
        arguments += lent_buffers(buffers, width, height, self.form)
        done = answer("belt_run_job", self._run, *arguments)
        return report_of(self._step(done, done.report, *arguments))

    def job_of_words(
        self,
        words: Any,
        settings: Settings,
        classes: Any,
        blocks: Any,
        header: Any,
        types: Any = (0,) * 6,
        models: Any = None,
    ) -> Report:
        """Runs a job from its words on as an inter frame, with the run's prior, flag and form. Refuses as job_of_words
        does, and 13 behind 12: a class 4 in form 1."""
        handed = asked_of_words(words, settings, classes, types, models)
        arguments = (*handed, *lent_of_words(blocks, header, handed[0].total, self.form))
        done = answer("belt_run_job_of_words", self._run, *arguments)
        return report_of(self._step(done, done.report, *arguments))


class RunReader(_Held):
    """The reader of a Run: begun alike, and given in the same order the switches and the frames that were accepted, it gives
    each frame's models; a refused call leaves it as it was.

    >>> import belt
    >>> belt.RunReader(1, belt.FORM_2).read(False, b"\\x00", 0).bits
    7
    """

    def read(self, intra: bool, header: Any, at: int) -> Models:
        """Reads a frame of either kind from a bit of its header on. Refuses 4, 8, 9; of a key frame 4, 8."""
        arguments = octets(header, "header"), size(at, "at")
        read = answer("belt_run_read", self._run, bool(intra), *arguments)
        return models_read(self._step(read, read.models, *arguments))
