gap 1
path a a
chance 12 16
ceiling 12
nodes 3
B
O 12
O 12
end
