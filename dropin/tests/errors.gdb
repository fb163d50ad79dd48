# errors.gdb: errors within gdb, each thrown in its C++ and caught by its Python.
python
right = 0
for number in range(3000):
    try:
        gdb.execute(f'print no_such_name_{number}', to_string=True)
    except gdb.error as error:
        right += str(error).startswith('No symbol')
    try:
        gdb.parse_and_eval('1 +')
    except gdb.error:
        right += 1
print(f'{right} errors are right')
gdb.execute(f'quit {int(right != 6000)}')
end
