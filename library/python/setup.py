"""Builds the module of the package from resb.h and libresb.a beside this file, where tools/library puts them."""

from setuptools import Extension, setup

setup(
    ext_modules=[
        Extension(
            "resb._library",
            ["_library.c"],
            include_dirs=["."],
            extra_objects=["libresb.a"],
            extra_compile_args=["-std=c11", "-O2", "-g0", "-Wall", "-Wextra", "-Wno-unused-parameter", "-Werror"],
            extra_link_args=["-Wl,--exclude-libs,ALL", "-Wl,-z,relro,-z,now", "-Wl,--build-id=none", "-s"],
            py_limited_api=True,
        )
    ]
)
