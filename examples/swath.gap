gap 2
path over-west over-middle over-middle over-east
chance 55790230 100000000
ceiling 59646320
nodes 3
B
O 59646320
O 57214700
end
