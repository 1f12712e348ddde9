"""A service for the checks that sleeps as long as it is asked to, and answers as many bytes."""
import sys, time
sys.path.insert(0, sys.argv[1])
import okws

def page(site, request):
    seconds = float(request.query['seconds'])
    time.sleep(seconds)
    return 'a' * int(request.query['size']) if 'size' in request.query else f'slept {seconds}\n'

okws.serve(page)
