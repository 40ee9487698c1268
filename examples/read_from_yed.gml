# written in the manner of yEd
Creator	"yFiles"
Version	"2.17"
graph
[
	hierarchic	1
	label	""
	directed	1
	node
	[
		id	0
		label	"Start &quot;here&quot;
and go on"
		graphics
		[
			x	325.0
			y	177.0
			w	30.0
			h	30.0
			type	"rectangle"
			raisedBorder	0
			fill	"#FFCC00"
			outline	"#000000"
		]
		LabelGraphics
		[
			text	"Start [1]"
			fontSize	12
			fontName	"Dialog"
			anchor	"c"
		]
	]
	node
	[
		id	7
		label	"Ende ü"
	]
	node
	[
		id	3
		gid	7
	]
	edge
	[
		source	0
		target	7
		graphics
		[
			fill	"#000000"
			targetArrow	"standard"
			Line
			[
				point
				[
					x	325.0
					y	177.0
				]
			]
		]
	]
	edge
	[
		source	7
		target	3
	]
	edge
	[
		source	3
		target	0
	]
]
