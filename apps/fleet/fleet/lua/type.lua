-- A viewer types, or sends a signal or a size: INCARNATION VIEWER NUMBER LIMIT FIELD(keys|signal|screen) VALUE
-- ok; or lost, closed, silent (no host has the session), refused (the host takes no input), full (so many entries wait already).
-- Number counts from 1 for each viewer; what was sent with a number is there once, if it isn't sent again after a day. Signals and sizes
-- have a separate stream, so that they reach a program that reads no input.
local inc, viewer, number, limit = ARGV[1], ARGV[2], tonumber(ARGV[3]), tonumber(ARGV[4])
local about = redis.call('HMGET', key(inc, 'about'), 'name', 'input', 'closed')
if about[3] then return {'closed'} end
if not about[1] then return {'lost'} end
if redis.call('GET', 'fleet:lease:' .. about[1]) ~= inc then return {'silent'} end
if ARGV[5] == 'keys' and about[2] ~= '1' then return {'refused'} end
local typed = key(inc, 'typed:' .. viewer)
if number <= tonumber(redis.call('GET', typed) or 0) then return {'ok'} end
local stream = key(inc, ARGV[5] == 'keys' and 'keys' or 'signals')
if redis.call('XLEN', stream) >= limit then return {'full'} end
redis.call('SET', typed, ARGV[3], 'PX', 86400000)
redis.call('XADD', stream, '*', 't', moment(), 'by', viewer, 'n', ARGV[3], ARGV[5], ARGV[6])
return {'ok'}
