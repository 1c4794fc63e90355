"""Many orders: here, over ssh to this machine itself, and as a Slurm array, with daemons of the test's own."""
import getpass
import os
import shutil
import socket
import subprocess
import time

from common import PROGRAM, SECONDS, ToolTest, example, needs_command, read

SBIN = '/usr/sbin'
PRIVILEGES = '/run/sshd'


def free_port():
    with socket.socket() as place:
        place.bind(('127.0.0.1', 0))
        return place.getsockname()[1]


class Folder(ToolTest):
    def setUp(self):
        super().setUp()
        self.orders, self.tables = self.path('orders'), self.path('tables')
        os.mkdir(self.orders)
        for name in ('bahrain', 'qina-hole'):
            shutil.copy(example(name + '.json'), self.orders)

    def same(self):
        for name in ('bahrain.txt', 'qina-hole.txt'):
            self.assertEqual(read(os.path.join(self.tables, name)), read(example(name)))

    def table(self, name):
        return os.path.join(self.tables, name)

    def start(self, *words, env=None):
        """A daemon of the test's own, ended with it by its own number."""
        run = subprocess.Popen(words, cwd=self.folder, env={**os.environ, **(env or {})}, stdin=subprocess.DEVNULL,
                               stdout=subprocess.DEVNULL, stderr=subprocess.DEVNULL)
        self.addCleanup(self.end, run)
        return run

    def end(self, run):
        run.terminate()
        try:
            run.wait(20)
        except subprocess.TimeoutExpired:
            run.kill()
            run.wait()

    def wait_for(self, done, what):
        for _ in range(150):
            if done():
                return
            time.sleep(0.2)
        self.skipTest(f'{what} did not come up on this machine')


@needs_command('parallel', 'parallel')
class ParallelTest(Folder):
    def test_a_folder_becomes_tables_and_a_refusal_its_line(self):
        self.write('orders/wrong.json', '{"from":"2025-02-30"}')
        run = self.run_tool('many', self.orders, self.tables)
        self.assertEqual((run.returncode, run.stdout), (1, f'2 tables of 3 orders in {self.tables}\n'))
        self.assertIn('wrong.json: status 3: order refused 5 range from', run.stderr)
        self.assertEqual(sorted(os.listdir(self.tables)), ['bahrain.txt', 'qina-hole.txt', 'wrong.refused'])
        self.same()

    def test_it_goes_on_where_it_stopped_and_takes_no_half_table(self):
        self.done('many', self.orders, self.tables)
        whole = os.stat(self.table('bahrain.txt')).st_mtime_ns
        self.write('tables/qina-hole.txt', read(example('qina-hole.txt'))[:-10])
        self.write('tables/bahrain.txt.part.elsewhere.1', 'prayer timetable 1\n')
        self.done('many', self.orders, self.tables)
        self.assertEqual(os.stat(self.table('bahrain.txt')).st_mtime_ns, whole)
        self.same()
        os.utime(self.table('bahrain.txt'), (1, 1))
        self.done('many', self.orders, self.tables)
        self.assertGreater(os.stat(self.table('bahrain.txt')).st_mtime_ns, whole)

    def test_an_undecided_entry_is_an_answer_and_a_program_that_dies_is_none(self):
        order = read(example('bahrain.json')).replace('"days":30', '"days":1')
        place = '[0.325958,0]'
        order = order[:order.index('"district"')] + '"district":{"type":"Polygon","coordinates":[[%s]]}}' % ','.join([place] * 4)
        open_order = order.replace('2025-03-01', '2000-01-01').replace('makkah', 'mwl').replace('180', '0')
        self.write('orders/open.json', open_order)
        self.done('many', self.orders, self.tables)
        self.assertIn('end days 1 open 1\n', read(self.table('open.txt')))
        dying = self.write('dying', '#!/bin/sh\necho "prayer timetable 1"\necho "no memory" >&2\nexit 6\n')
        os.chmod(dying, 0o755)
        os.remove(self.table('open.txt'))
        run = self.run_tool('many', self.orders, self.tables, env={'TIMETABLE': dying})
        self.assertEqual(run.returncode, 1)
        self.assertIn('open.json: status 6: no memory', run.stderr)
        self.assertEqual(sorted(os.listdir(self.tables)), ['bahrain.txt', 'qina-hole.txt'])

    def test_wrong_words(self):
        for words in ((), (self.orders,), ('a', 'b', 'c'), (self.orders, self.tables, '--jobs', 'x'), ('--fast', 'a', 'b')):
            self.assertEqual(self.run_tool('many', *words).returncode, 2)
        self.stopped('no such folder', 'many', self.path('none'), self.tables)
        self.stopped('no such file', 'many', self.orders, self.tables, '--sshloginfile', self.path('none'))

    @needs_command('sshd', 'openssh-server')
    @needs_command('ssh', 'openssh-client')
    def test_over_ssh_to_this_machine(self):
        port = self.ssh_daemon()
        login = (f'ssh -F none -i {self.path("key")} -p {port} -o BatchMode=yes -o StrictHostKeyChecking=no '
                 f'-o UserKnownHostsFile={self.path("known")} -o LogLevel=ERROR {getpass.getuser()}@127.0.0.1')
        logins = self.write('logins', f'2/{login}\n')
        self.done('many', self.orders, self.tables, '--sshloginfile', logins)
        self.same()
        self.assertIn('Accepted publickey', read(self.path('sshd.log')))

    def ssh_daemon(self):
        port = free_port()
        if not os.path.isdir(PRIVILEGES):
            try:
                os.mkdir(PRIVILEGES, 0o755)
                self.addCleanup(os.rmdir, PRIVILEGES)
            except OSError:
                self.skipTest(f'{PRIVILEGES}, which sshd needs, is missing')
        for name in ('host', 'key'):
            subprocess.run(['ssh-keygen', '-q', '-t', 'ed25519', '-N', '', '-f', self.path(name)], check=True)
        config = self.write('sshd_config', f'Port {port}\nListenAddress 127.0.0.1\nHostKey {self.path("host")}\nPidFile none\n'
                            f'AuthorizedKeysFile {self.path("key.pub")}\nStrictModes no\nUsePAM no\nPasswordAuthentication no\n'
                            'KbdInteractiveAuthentication no\nPermitRootLogin prohibit-password\n')
        self.start(f'{SBIN}/sshd', '-D', '-f', config, '-E', self.path('sshd.log'))
        self.wait_for(lambda: os.path.exists(self.path('sshd.log')) and 'listening' in read(self.path('sshd.log')), 'sshd')
        return port


@needs_command('sbatch', 'slurm-wlm')
@needs_command('slurmctld', 'slurm-wlm')
@needs_command('slurmd', 'slurm-wlm')
@needs_command('munged', 'munge')
class SlurmTest(Folder):
    def test_as_an_array_job(self):
        env = {'SLURM_CONF': self.cluster(), 'TIMETABLE': PROGRAM}
        self.write('orders/wrong.json', '{"from":"2025-02-30"}')
        run = self.run_tool('many', self.orders, self.tables, '--slurm', env=env)
        self.assertEqual((run.returncode, run.stdout), (1, f'2 tables of 3 orders in {self.tables}\n'), run.stderr)
        self.assertIn('order refused 5 range from', run.stderr)
        self.assertEqual(sorted(os.listdir(self.tables)), ['bahrain.txt', 'qina-hole.txt', 'wrong.refused'])
        self.same()

    def cluster(self):
        """One machine with all three daemons as ordinary processes: no service manager, no control group."""
        name, user = socket.gethostname().split('.')[0], getpass.getuser()
        for folder in ('state', 'spool'):
            os.mkdir(self.path(folder))
        with open(self.path('munge.key'), 'wb') as file:
            file.write(os.urandom(128))
        os.chmod(self.path('munge.key'), 0o600)
        words = {'ClusterName': 'test', 'SlurmctldHost': f'{name}(127.0.0.1)', 'SlurmUser': user, 'SlurmdUser': user,
                 'AuthType': 'auth/munge', 'AuthInfo': f'socket={self.path("munge.sock")}', 'StateSaveLocation': self.path('state'),
                 'SlurmdSpoolDir': self.path('spool'), 'SlurmctldPidFile': self.path('ctld.pid'),
                 'SlurmdPidFile': self.path('slurmd.pid'), 'SlurmctldLogFile': self.path('ctld.log'),
                 'SlurmdLogFile': self.path('slurmd.log'), 'SlurmctldPort': free_port(), 'SlurmdPort': free_port(),
                 'ProctrackType': 'proctrack/linuxproc', 'TaskPlugin': 'task/none', 'JobAcctGatherType': 'jobacct_gather/none',
                 'MpiDefault': 'none', 'SelectType': 'select/cons_tres', 'SelectTypeParameters': 'CR_Core', 'ReturnToService': 2}
        lines = [f'{key}={value}\n' for key, value in words.items()]
        lines += [f'NodeName={name} NodeAddr=127.0.0.1 CPUs={os.cpu_count()} State=UNKNOWN\n',
                  'PartitionName=all Nodes=ALL Default=YES MaxTime=INFINITE State=UP\n']
        config = self.write('slurm.conf', ''.join(lines))
        self.start(f'{SBIN}/munged', '--foreground', '--force', f'--key-file={self.path("munge.key")}',
                   f'--socket={self.path("munge.sock")}', f'--pid-file={self.path("munged.pid")}',
                   f'--log-file={self.path("munged.log")}', f'--seed-file={self.path("munged.seed")}')
        self.wait_for(lambda: os.path.exists(self.path('munge.sock')), 'munged')
        self.start(f'{SBIN}/slurmctld', '-D', '-f', config)
        self.start(f'{SBIN}/slurmd', '-D', '-f', config)
        self.wait_for(lambda: self.is_idle(config), 'slurmctld with slurmd')
        return config

    def is_idle(self, config):
        told = subprocess.run(['sinfo', '--noheader', '--format=%t'], capture_output=True, text=True, timeout=SECONDS,
                              env={**os.environ, 'SLURM_CONF': config})
        return told.stdout.strip() == 'idle'
