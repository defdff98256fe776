compile_error!("this is not rayon. rust/test has the lines that give cargo the real one");
