"""Shows when `./ra_monitor` has the program built, and when not: after each change of what it depends on."""
import os
import shutil
import subprocess

from assertions import require
from fake_repository import ALL, CRATES, KIT, PROGRAM, SECONDS, FakeRepository, built, check, is_built_again
from fake_repository import is_left_alone, wait_until


@check
def a_copy_is_not_built_again(repository):
    built(repository)
    copy = FakeRepository.__new__(FakeRepository)
    copy.__dict__.update(repository.__dict__, top=repository.folder / "a copy")
    subprocess.run(["cp", "-r", repository.top, copy.top], check=True)
    is_left_alone(copy)
    copy.write("crates/left/src/lib.rt", "//! Another one.\n")
    is_built_again(copy, ["left", PROGRAM])
    is_left_alone(repository)


@check
def a_copy_of_an_older_program_is_built_again(repository):
    """The sources changed before the copy, whose program then has the latest time."""
    built(repository)
    repository.write(f"crates/{PROGRAM}/src/main.rt", "second text")
    subprocess.run(["cp", "-r", repository.top, repository.folder / "a copy"], check=True)
    repository.top = repository.folder / "a copy"
    is_built_again(repository, [PROGRAM], "second text")


@check
def a_checkout_over_a_kept_out(repository):
    """The same sources with other times and inodes, and then others with an older time."""
    built(repository)
    shutil.rmtree(repository.top / "crates" / "low" / "src")
    repository.git("checkout", "-q", ".")
    is_left_alone(repository)
    repository.write(f"crates/{PROGRAM}/src/main.rt", "second text")
    repository.commit("another text")
    is_built_again(repository, [PROGRAM], "second text")
    repository.git("checkout", "-q", "HEAD^")
    os.utime(repository.top / "crates" / PROGRAM / "src" / "main.rt", (1, 1))
    is_built_again(repository, [PROGRAM])


@check
def a_file_that_is_gone(repository):
    built(repository)
    (repository.top / "crates" / "low" / "proofs" / "Laws.antt").unlink()
    is_built_again(repository, ALL)


@check
def a_file_that_is_new(repository):
    built(repository)
    repository.write("crates/right/specs/More.antt", "a definition\n")
    is_built_again(repository, ["right", PROGRAM])


@check
def a_file_that_has_another_name(repository):
    built(repository)
    laws = repository.top / "crates" / "low" / "proofs" / "Laws.antt"
    laws.rename(laws.with_name("Rules.antt"))
    is_built_again(repository, ALL)


@check
def a_file_that_is_put_back_with_an_older_date(repository):
    built(repository)
    repository.write("../kept", "second text")
    os.utime(repository.folder / "kept", (1, 1))
    shutil.copy2(repository.folder / "kept", repository.top / "crates" / PROGRAM / "src" / "main.rt")
    is_built_again(repository, [PROGRAM], "second text")


@check
def a_file_of_the_same_size_and_time(repository):
    built(repository)
    main = repository.top / "crates" / PROGRAM / "src" / "main.rt"
    was = main.stat()
    main.write_text("other text")
    os.utime(main, ns=(was.st_atime_ns, was.st_mtime_ns))
    is_built_again(repository, [PROGRAM], "other text")


@check
def a_file_that_is_only_touched(repository):
    built(repository)
    os.utime(repository.top / "crates" / "low" / "src" / "lib.rt")
    is_left_alone(repository)


@check
def handles_that_changed(repository):
    built(repository)
    repository.write("HANDLES", "Handles allowed: Threads.\n")
    is_built_again(repository, [PROGRAM])
    (repository.top / "HANDLES").unlink()
    is_built_again(repository, [PROGRAM])


@check
def a_line_of_the_list_that_changed(repository):
    built(repository)
    repository.write("crates.txt", CRATES.replace("right: low", "right: low std"))
    is_built_again(repository, ["right", PROGRAM])


@check
def lines_of_the_list_that_do_not_matter(repository):
    built(repository)
    repository.write("crates.txt", f"# more\n{CRATES}  # and more\n".replace("other: low", "other: left"))
    is_left_alone(repository)


@check
def a_crate_that_no_program_stands_on(repository):
    built(repository)
    repository.write("crates/other/src/lib.rt", "//! Changed.\n")
    is_left_alone(repository)


@check
def another_kit(repository):
    built(repository)
    (repository.kit / "KIT-ID").write_text("kit of another name\n")
    is_built_again(repository, [PROGRAM])


@check
def another_kit_that_has_only_a_version(repository):
    built(repository)
    (repository.kit / "KIT-ID").unlink()
    (repository.kit / "identity").write_text(f"{KIT}\n")
    is_left_alone(repository)
    (repository.kit / "identity").write_text("kit of another name\n")
    os.utime(repository.kit / "bin" / "rt")
    is_built_again(repository, [PROGRAM])


@check
def a_program_that_another_one_overwrote(repository):
    built(repository)
    program = repository.top / "crates" / PROGRAM / "out" / PROGRAM
    program.write_text("#!/bin/sh\necho another\n")
    is_built_again(repository, [PROGRAM])
    program.unlink()
    is_built_again(repository, [PROGRAM])


@check
def what_changes_meanwhile_belongs_to_the_next(repository):
    repository.hold(PROGRAM)
    run = repository.start("check")
    wait_until(lambda: repository.is_at_work_on(PROGRAM))
    repository.write(f"crates/{PROGRAM}/src/main.rt", "second text")
    repository.release()
    require(run.communicate("given\n", timeout=SECONDS)[0].startswith("first text"))
    repository.proved()
    is_built_again(repository, [PROGRAM], "second text")
