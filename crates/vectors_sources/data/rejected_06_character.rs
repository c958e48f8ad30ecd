let a = 'bc';
