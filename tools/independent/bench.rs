//! Times the library beside the independent program and prints tables: `bench`.
//!
//! Both do the same on tables and buffers of their own, which were written to before, outside the time taken. The two take turns, and
//! the best of nine rounds counts, or of more where little is read. The run ends where the two disagree.

mod measures;

fn main() {
    measures::walk::print_table();
    measures::coder::print_tables();
    measures::mesh::print_tables();
    measures::mesh_file::print_table();
    measures::climb::print_table();
    measures::steps::print_tables();
}
