//! Says loudly which tests this build has.

fn main() {
    if cfg!(qbx_lib) {
        println!("\nqanbillox: LIBRARY LINKED, it is compared with the reference implementation");
    } else {
        println!("\nqanbillox: NO LIBRARY FOUND, only the reference implementation is tested");
    }
}
