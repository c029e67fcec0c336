cp ../unix_path/include/unix_path.h ../unix_path/asm/x86_64-linux/unix_path.s .
cp ../unix_path/examples/c/sorted_paths.c .
cc -c unix_path.s
cc -c -I. sorted_paths.c
cc sorted_paths.o unix_path.o -o sorted_paths
