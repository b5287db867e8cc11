"""A copy of the launcher, the checker and the C library in another folder, which needs neither the kit nor this one."""
from __future__ import annotations

import os
import py_compile
import shutil

from launcher import VERSION
from launcher.build import built_by, lock, run_rt
from launcher.project import Project
from launcher.streams import Failure, file_of, read_file, reason, write_whole

ARCHIVE = "libglubotar_c.a"
PKG_CONFIG = f"""\
prefix=${{pcfiledir}}/../..

Name: glubotar
Description: Checks traces of GPU barrier steps
Version: {VERSION}
Cflags: -I${{prefix}}/include
Libs: -L${{prefix}}/lib -lglubotar_c
"""


def install(root: str, prefix: str) -> None:
    """Builds what is missing and lays it all under the prefix. A copy that is there already is replaced whole."""
    project = Project(root)
    if project.installed:
        raise Failure("this is an installed copy; install starts from the project's own folder")
    os.umask(0o022)  # others are to run it too
    try:
        os.makedirs(os.path.join(prefix, "lib"), exist_ok=True)  # a wrong prefix is said before the build
        project.command()
        with lock(project):  # nobody builds the checker anew meanwhile
            run_rt(project, "lib", "glubotar_c")
            install_launcher(project, prefix)
            install_library(project, prefix)
    except OSError as error:
        raise Failure(f"{file_of(error, prefix)} can't be written: {reason(error)}") from None


def install_launcher(project: Project, prefix: str) -> None:
    home = os.path.join(prefix, "lib", "glubotar")
    fresh, old = (f"{home}.{os.getpid()}.{what}" for what in ("part", "old"))
    try:
        lay_home(project, fresh)
        if os.path.exists(home):
            os.rename(home, old)
        os.rename(fresh, home)
    finally:
        if os.path.exists(old) and not os.path.exists(home):
            os.rename(old, home)
        for folder in (fresh, old):
            shutil.rmtree(folder, ignore_errors=True)
    link = os.path.join(prefix, "bin", "glubotar")
    beside = f"{link}.{os.getpid()}.part"
    os.makedirs(os.path.dirname(link), exist_ok=True)
    os.symlink(os.path.join("..", "lib", "glubotar", "glubotar"), beside)
    os.replace(beside, link)


def lay_home(project: Project, home: str) -> None:
    """The launcher with its modules, compiled too, the checker, and the page on refusals."""
    copy(os.path.join(project.root, "glubotar"), os.path.join(home, "glubotar"))
    for page in ("docs/TRACES.md", "docs/RELEASE-RUN.md"):
        copy(os.path.join(project.root, page), os.path.join(home, page))
    modules = os.path.join(project.root, "launcher")
    for name in sorted(os.listdir(modules)):
        if name.endswith(".py"):
            copied = os.path.join(home, "launcher", name)
            copy(os.path.join(modules, name), copied)
            py_compile.compile(copied, doraise=True)
    for name in sorted(os.listdir(project.checker)):
        copy(os.path.join(project.checker, name), os.path.join(home, "checker", os.path.basename(project.checker), name))


def install_library(project: Project, prefix: str) -> None:
    copy(os.path.join(project.root, "include", "glubotar.h"), os.path.join(prefix, "include", "glubotar.h"))
    copy(built_by(project, "glubotar_c", ARCHIVE), os.path.join(prefix, "lib", ARCHIVE))
    lay(os.path.join(prefix, "lib", "pkgconfig", "glubotar.pc"), PKG_CONFIG.encode(), 0o644)


def copy(source: str, target: str) -> None:
    mode = 0o755 if os.access(source, os.X_OK) else 0o644
    lay(target, read_file(os.fsencode(source)), mode)


def lay(target: str, data: bytes, mode: int) -> None:
    os.makedirs(os.path.dirname(target), exist_ok=True)
    write_whole(os.fsencode(target), data, mode)
