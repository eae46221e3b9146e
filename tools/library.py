"""What a test of the boundary needs of this machine: the static library, a C compiler, cargo."""
import os
import platform
import shutil
import subprocess

ROOT = os.path.dirname(os.path.dirname(os.path.realpath(__file__)))


def folder(words):
    """The folder of libwaikurpeho.a: the one that is named, else that of tools/build_library."""
    return os.path.abspath(words[0]) if words else os.path.join(ROOT, 'target', 'staticlib')


def archive(words):
    return os.path.join(folder(words), 'libwaikurpeho.a')


def compiler():
    return shutil.which('cc') or shutil.which('gcc')


def cargo():
    """cargo, if it has a toolchain to run."""
    found = shutil.which('cargo')
    runs = found and not subprocess.run([found, '--version'], stdout=subprocess.DEVNULL, stderr=subprocess.DEVNULL).returncode
    return found if runs else None


def lacking(words, tool, name):
    """What is missing for programs that link the library, in words, or nothing. tool: what was found of a compiler, which is called name."""
    if not tool:
        return 'there is no %s' % name
    if not os.path.exists(archive(words)):
        return 'there is no %s: run tools/build_library' % archive(words)
    # tools/build_library writes for x86-64 on every machine; a folder that is named may have another
    if platform.machine() != 'x86_64' and not words:
        return '%s is for x86-64, and this machine is %s' % (archive(words), platform.machine())
    return ''


def examples():
    """The load files of examples/made."""
    made = os.path.join(ROOT, 'examples', 'made')
    return [os.path.join(made, name) for name in sorted(os.listdir(made)) if name.endswith('.sheet')]
