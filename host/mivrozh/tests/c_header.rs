//! The C header: a program that uses it compiles without a warning, as C and as C++, runs, has no error of memory and
//! leaves no secret behind.
mod programs;
use programs::{compile, host, of_tests, run};
use std::path::Path;
use std::process::Command;

#[test]
fn the_example_runs() {
    let program = compile("gcc", &[], &[&host().join("c/example.c")], "example");
    let said = run(&mut Command::new(program));
    assert!(said.ends_with("all as expected\n"), "{said}");
}

#[test]
fn the_screens_fill_their_arrays_and_nothing_else() {
    for level in ["-O0", "-O2"] {
        let program = compile("gcc", &[level], &[&of_tests("screens.c")], &format!("screens{level}"));
        let said = run(&mut Command::new(program));
        assert!(said.ends_with("all as expected\n"), "{level}: {said}");
    }
}

// Memory that it gives back is zeros, and no piece of the key stays on its stack. It is linked with -z now: else the
// dynamic linker saves registers, with what the C library's functions left in them, to the stack.
#[test]
fn the_example_wipes_what_it_had() {
    let (example, looking) = (host().join("c/example.c"), of_tests("looking.c"));
    for level in ["-O0", "-O2"] {
        let wraps = ["-Wl,-z,now", "-Wl,--wrap=free", "-Wl,--wrap=printf", "-Wl,--wrap=mivrozh_format", level];
        let program = compile("gcc", &wraps, &[&example, &looking], &format!("looking{level}"));
        let said = run(&mut Command::new(program));
        assert!(said.ends_with("all as expected\n"), "{level}: {said}");
    }
}

#[test]
fn the_stack_is_wiped_for_c() {
    for level in ["-O0", "-O2"] {
        let program = compile("gcc", &["-pthread", level], &[&of_tests("stack.c")], &format!("stack{level}"));
        let said = run(&mut Command::new(program));
        assert!(said.ends_with("all as expected\n"), "{level}: {said}");
    }
}

// The binding and the header have each its own bound on the stack.
#[test]
fn the_header_has_the_bindings_stack() {
    let source = Path::new(env!("CARGO_TARGET_TMPDIR")).join("bounds.c");
    let text = "#include <mivrozh.h>\n\
        #include <stdio.h>\n\
        int main(void) { return printf(\"%d %d\", MIVROZH_MOST_STACK, MIVROZH_WIPED_STACK) < 0; }\n";
    std::fs::write(&source, text).expect("a file in the target folder");
    let said = run(&mut Command::new(compile("gcc", &[], &[&source], "bounds")));
    assert_eq!(said, format!("{} {}", mivrozh::raw::MOST_STACK, mivrozh::raw::WIPED_STACK));
}

#[test]
fn the_header_is_for_every_standard_of_c() {
    for standard in ["-std=c99", "-std=c11", "-std=c17"] {
        let program = compile("gcc", &[standard], &[&host().join("c/example.c")], &format!("example{standard}"));
        run(&mut Command::new(program));
    }
}

#[test]
fn the_header_is_for_cpp_too() {
    let source = Path::new(env!("CARGO_TARGET_TMPDIR")).join("header.cpp");
    let text = "#include <mivrozh.h>\n\
        int main() {\n\
            uint64_t values = 9;\n\
            uint8_t opened[66], number = mivrozh_open(nullptr, 0, nullptr, 0, opened, &values), enabled[8];\n\
            uint32_t counts[8], starts[8], stripes[8];\n\
            mivrozh_wipe_stack();\n\
            if (mivrozh_slots(nullptr, 0, enabled) != 1) return 1;\n\
            if (mivrozh_slot_details(nullptr, 0, enabled, counts, starts, stripes) != 1) return 1;\n\
            if (mivrozh_revoke(nullptr, 0, 1, nullptr, 0, nullptr, 0, &values) != 1 || values != 0) return 1;\n\
            return number == 1 ? 0 : 1;\n\
        }\n";
    std::fs::write(&source, text).expect("a file in the target folder");
    run(&mut Command::new(compile("g++", &[], &[&source], "header-cpp")));
}

#[test]
fn the_example_in_the_readme_compiles() {
    let readme = std::fs::read_to_string(host().join("../README.md")).expect("README.md");
    let (_, rest) = readme.split_once("```c\n").expect("an example in C");
    let (example, _) = rest.split_once("```").expect("its end");
    let source = Path::new(env!("CARGO_TARGET_TMPDIR")).join("readme.c");
    std::fs::write(
        &source,
        format!("{example}\nint main(void) {{ return first_units(0, 0, \"\", 0) == 1 ? 0 : 1; }}\n"),
    )
    .expect("a file");
    run(&mut Command::new(compile("gcc", &[], &[&source], "readme")));
}

#[test]
fn memcheck_finds_no_error() {
    let program = compile("gcc", &[], &[&host().join("c/example.c")], "example-memcheck");
    run(Command::new("valgrind").args(["--quiet", "--error-exitcode=1", "--leak-check=full"]).arg(program));
}
