-- A host ends a session: NAME INCARNATION HOST POSITION STATUS VERSION RETAIN(ms, -1 for ever)
-- ok; closed, lost, taken; or back, with the end there. May be sent again.
local name, inc = ARGV[1], ARGV[2]
local there, answer = place_of(inc, ARGV[3])
if not there and answer[1] == 'closed' and answer[2] == ARGV[5] then return {'ok'} end
if not there then return answer end
if there ~= tonumber(ARGV[4]) then return {'back', answer} end
close(inc, ARGV[5], ARGV[6], ARGV[7])
free_name(name, inc)
return {'ok'}
