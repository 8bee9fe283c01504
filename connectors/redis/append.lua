-- Appends blocks to one Redis stream, behind the message that the writer takes for the last: no other writer comes in between, and nothing
-- is there twice. What is there already the writer has compared before.
--
-- KEYS[1]: the Redis stream. ARGV[1]: the id of the last message that it had, 0-0 for none. ARGV[2]: '1' asks for a write even where
-- nothing is new, which WAIT and the file can be asked about. Then an id, a block and its checksum each. Gives 'ok' or 'moved', and the last id.
local last = '0-0'
local exists = redis.call('EXISTS', KEYS[1]) == 1
if exists then
  local info = redis.call('XINFO', 'STREAM', KEYS[1])
  for i = 1, #info, 2 do
    if info[i] == 'last-generated-id' then last = info[i + 1] end
  end
end
if last ~= ARGV[1] then return {'moved', last} end
for i = 3, #ARGV - 2, 3 do
  redis.call('XADD', KEYS[1], ARGV[i], 'b', ARGV[i + 1], 's', ARGV[i + 2])
  last = ARGV[i]
end
if ARGV[2] == '1' and #ARGV == 2 and exists then redis.call('XSETID', KEYS[1], last) end
return {'ok', last}
