.class public La/Main;
.super Landroid/app/Activity;
.implements La/I;
