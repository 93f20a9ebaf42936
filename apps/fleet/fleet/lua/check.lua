-- A host stores a checkpoint: INCARNATION HOST POSITION LENGTH SHA256 VERSION REPAINT SCREEN KEEP(bytes, -1 for all) JUMPS(0|1)
-- ok; closed, lost, taken; or back, with the end there. If it jumps, the bytes before it are gone, and the session goes on after it.
local inc, at, keep = ARGV[1], tonumber(ARGV[3]), tonumber(ARGV[9])
local there, answer = place_of(inc, ARGV[2])
if not there then return answer end
if ARGV[10] == '1' and there < at then
  redis.call('HSET', key(inc, 'about'), 'end', ARGV[3])
  if ARGV[8] ~= '' then redis.call('HSET', key(inc, 'about'), 'resized', ARGV[8]) end
elseif there < at then
  return {'back', answer}
end
redis.call('HSET', key(inc, 'checkpoint'), 'at', ARGV[3], 'length', ARGV[4], 'sha256', ARGV[5], 'v', ARGV[6], 'repaint', ARGV[7], 'screen', ARGV[8])
if keep >= 0 and at > keep then redis.call('XTRIM', key(inc, 'bytes'), 'MINID', string.format('%.0f-0', at - keep)) end
return {'ok'}
