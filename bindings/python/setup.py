"""The wheel has a shared library inside, so it is for one kind of machine; it has no code for one Python, so it is for every Python 3."""

from pathlib import Path

from setuptools import Distribution, setup

try:
    from setuptools.command.bdist_wheel import bdist_wheel
except ImportError:
    # setuptools before 70.1 leaves it to the package wheel
    from wheel.bdist_wheel import bdist_wheel

LIBRARY = Path(__file__).with_name("kressedach") / "libkressedach.so"


class ForOneMachine(Distribution):
    def has_ext_modules(self):
        return True


class Wheel(bdist_wheel):
    def get_tag(self):
        return "py3", "none", super().get_tag()[2]

    def run(self):
        if not LIBRARY.exists():
            raise SystemExit(f"there is no {LIBRARY}: bindings/python/wheel makes a wheel with the library inside")
        super().run()


setup(distclass=ForOneMachine, cmdclass={"bdist_wheel": Wheel})
