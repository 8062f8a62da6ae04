"""Builds the package, with the extension where JCACHE_ARCHIVE and JCACHE_HEAP name the archives and there is a compiler."""

import os

from setuptools import Extension, setup

archives = [os.environ[name] for name in ("JCACHE_ARCHIVE", "JCACHE_HEAP") if name in os.environ]
headers = os.environ.get("JCACHE_HEADERS", "../../include")
extension = Extension("jcache._native", ["jcache/_native.c"], include_dirs=[headers],
                      extra_objects=archives, depends=["jcache/_handle.h"], optional=True)
setup(
    name="jcache",
    version="0.1.0",
    description="Named caches with the behaviour of JSR 107, over a proved library",
    python_requires=">=3.8",
    packages=["jcache"],
    package_data={"jcache": ["py.typed", "_native.pyi"]},
    ext_modules=[extension] if len(archives) == 2 else [],
)
